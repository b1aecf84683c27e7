constexpr int a = 0b0;
