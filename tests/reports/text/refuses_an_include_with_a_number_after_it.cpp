#include <meta> 1
constexpr int a = 1;
