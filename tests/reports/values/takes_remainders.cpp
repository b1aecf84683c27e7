constexpr int a = 43 % 6;
