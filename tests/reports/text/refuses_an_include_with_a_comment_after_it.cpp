#include <meta> // one
constexpr int a = 1;
