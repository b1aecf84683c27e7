constexpr int a = 46340 * 46340;
constexpr int b = 1073741823 * 2;
constexpr int c = 2147483647 * 1;
