constexpr int a = 00;
