constexpr int a = 1;
#include <meta>