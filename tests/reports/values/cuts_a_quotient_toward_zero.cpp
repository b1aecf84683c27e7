constexpr int a = 7 / 2;
constexpr int b = 0 - 7 / 2;
constexpr int c = 1 / 2;
constexpr int d = 0 - 1 / 2;
