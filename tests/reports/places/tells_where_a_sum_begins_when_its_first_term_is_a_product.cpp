constexpr int a = 2 * 3 + 2147483647;
