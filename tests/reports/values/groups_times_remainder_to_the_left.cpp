constexpr int a = 7 * 5 % 4;
