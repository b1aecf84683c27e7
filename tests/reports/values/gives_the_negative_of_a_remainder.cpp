constexpr int a = 7 % 3;
constexpr int b = 0 - 7 % 3;
constexpr int c = 0 - 6 % 3;
