constexpr int a = 1e1;
