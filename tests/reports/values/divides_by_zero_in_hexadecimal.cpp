constexpr int a = 1 / 0x00;
