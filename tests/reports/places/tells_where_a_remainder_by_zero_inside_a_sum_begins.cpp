constexpr int a = 1 + 2 + 8 % 0 + 3;
