constexpr int a = 3 + 2147483647 * 2 - 1 / 0;
