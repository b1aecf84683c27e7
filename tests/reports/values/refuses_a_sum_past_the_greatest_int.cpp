constexpr int a = 2147483647 + 1;
