constexpr int a = 0B1;
