constexpr int a = 1 & 3;
