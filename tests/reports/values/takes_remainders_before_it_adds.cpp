constexpr int a = 20 + 12 % 5;
