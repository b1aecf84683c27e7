constexpr int a = 0x1p3;
