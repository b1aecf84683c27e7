constexpr int a = 0 - 2147483647 - 1 + 2147483647;
