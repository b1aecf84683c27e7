constexpr int a = 7 / 2 * 2;
