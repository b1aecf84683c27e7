constexpr int a = 0 - 2147483648;
