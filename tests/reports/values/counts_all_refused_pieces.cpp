constexpr int a = 1 / 0;
constexpr int b = 2147483647 + 1;
constexpr int c = 5 + 5 % 0;
