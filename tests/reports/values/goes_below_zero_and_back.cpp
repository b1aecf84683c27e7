constexpr int a = 5 - 9 + 6;
