constexpr int a = 7 * 5 / 2;
