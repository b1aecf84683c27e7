constexpr int a = 2 + 3 * 4;
