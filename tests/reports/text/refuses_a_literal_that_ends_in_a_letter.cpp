constexpr int a = 1a;
