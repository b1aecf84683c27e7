constexpr int a = 09;
