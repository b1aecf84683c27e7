#include <meta.h>
constexpr int a = 1;
