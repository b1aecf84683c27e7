# 1 "a.cpp"
#include <meta>
constexpr int größe = 3;
