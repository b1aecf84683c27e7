# 1 "a.cpp"
# 1 "<built-in>"
#include <meta>
#include <meta>
# 2 "a.cpp" 2
constexpr int a = 1;
