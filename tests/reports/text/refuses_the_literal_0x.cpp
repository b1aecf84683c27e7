constexpr int a = 0x;
