constexpr int a = 1;
constexpr int A = 2;
