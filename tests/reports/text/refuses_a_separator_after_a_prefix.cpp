constexpr int a = 0x'1;
