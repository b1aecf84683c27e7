constexpr int a = 65536 * 32767 + 65535;
