constexpr int a = 0b1;
