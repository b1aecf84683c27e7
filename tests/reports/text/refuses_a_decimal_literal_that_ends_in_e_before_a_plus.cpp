constexpr int a = 1e+1;
