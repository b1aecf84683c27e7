constexpr int a = 10 - 3 * 4 / 0;
