constexpr int a = 7 - 3;
