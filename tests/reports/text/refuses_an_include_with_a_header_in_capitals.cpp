#include <META>
constexpr int a = 1;
