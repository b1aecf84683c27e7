constexpr int a = 0'0 + 0x0'0 + 0b0'0 + 000;
