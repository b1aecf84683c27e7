constexpr int a = 018;
