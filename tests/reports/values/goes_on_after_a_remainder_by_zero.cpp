constexpr int a = 1 - 7 % 0;
constexpr int b = 1;