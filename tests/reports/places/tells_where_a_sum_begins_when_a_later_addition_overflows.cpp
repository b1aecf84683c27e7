constexpr int a = 1 + 2 * 3 + 2147483647;
