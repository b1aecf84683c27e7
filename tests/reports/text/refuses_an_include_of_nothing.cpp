#include
constexpr int a = 1;
