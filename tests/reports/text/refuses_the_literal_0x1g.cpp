constexpr int a = 0x1g;
