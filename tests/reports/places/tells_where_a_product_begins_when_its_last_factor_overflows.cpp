constexpr int a = 1 + 65536 * 16384 * 2;
