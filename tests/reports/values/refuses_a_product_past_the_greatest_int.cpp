constexpr int a = 65536 * 32768;
