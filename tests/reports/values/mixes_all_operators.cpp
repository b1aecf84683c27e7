constexpr int a = 1 + 2 * 3 - 4 / 2 + 17 % 5 * 6 - 100;
