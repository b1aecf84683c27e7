constexpr int const a = 1;
