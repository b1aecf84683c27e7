constexpr int a = 9999999999;
