Constexpr int a = 1;
