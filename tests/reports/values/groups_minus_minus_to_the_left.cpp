constexpr int a = 10 - 4 - 3;
