constexpr int a = 1;
constexpr int b = 2147483647 + 1;
constexpr int c = 3;
