constexpr int constexpr = 1;
