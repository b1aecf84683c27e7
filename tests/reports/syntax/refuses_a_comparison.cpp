constexpr int a = 1 == 1;
