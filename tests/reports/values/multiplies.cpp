constexpr int a = 6 * 7;
