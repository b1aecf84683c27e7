constexpr int a = 0 / 5;
constexpr int b = 0 % 5;
