constexpr int a = 1 + 2147483647 * 2;
