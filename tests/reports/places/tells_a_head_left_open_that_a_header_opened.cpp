# 0 "open.cpp"
# 0 "<built-in>"
# 0 "<command-line>"
# 1 "/usr/include/stdc-predef.h" 1 3 4
# 0 "<command-line>" 2
# 1 "open.cpp"
# 1 "begin.h" 1
namespace library {
# 2 "open.cpp" 2
constexpr int version = 3;
