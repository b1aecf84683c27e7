constexpr int a = 1 / 0 + 2147483647 * 2;
