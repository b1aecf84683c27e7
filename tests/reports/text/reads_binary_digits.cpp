constexpr int a = 0b10;
