constexpr int a = 7 / 2;
constexpr int b = 1 / 0;
