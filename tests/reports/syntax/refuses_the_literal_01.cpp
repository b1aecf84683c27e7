constexpr int a = 01;
