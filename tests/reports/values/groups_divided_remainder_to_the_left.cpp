constexpr int a = 100 / 7 % 4;
