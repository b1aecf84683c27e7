constexpr int alignas = 1;
