constexpr int a = 0 / 0;
constexpr int b = 0 % 0;
