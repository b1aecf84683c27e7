constexpr int a = 2147483646 + 1;
