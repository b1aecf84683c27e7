constexpr int a = 1u;
