# 0 "pragma.cpp"
# 0 "<built-in>"
# 0 "<command-line>"
# 1 "/usr/include/stdc-predef.h" 1 3 4
# 0 "<command-line>" 2
# 1 "pragma.cpp"
# 1 "repeat.h" 1
constexpr int shared = 1;
# 2 "pragma.cpp" 2
#pragma GCC diagnostic push
constexpr int other = 2;
