constexpr int a = 17 % 5 * 3;
