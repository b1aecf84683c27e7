constexpr int a = 17 % 10 / 3;
