constexpr int a = 3 - 7;
