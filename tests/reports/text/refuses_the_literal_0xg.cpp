constexpr int a = 0xg;
