constexpr int a = 100 / 10 / 5;
