#define N 1
constexpr int a = 1;
