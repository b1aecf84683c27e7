constexpr int a = 46341 * 46341;
