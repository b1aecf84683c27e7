constexpr int a = 0X1;
