constexpr int a = 29 % 10 % 4;
