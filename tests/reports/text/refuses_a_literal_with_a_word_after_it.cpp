constexpr int a = 1constexpr;
