constexpr int a = 1;
constexpr int b = 2;
constexpr int c = 3;
constexpr int a = 4;
