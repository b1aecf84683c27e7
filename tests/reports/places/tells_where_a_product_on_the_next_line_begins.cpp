constexpr int a = 1 +
 65536 * 65536;