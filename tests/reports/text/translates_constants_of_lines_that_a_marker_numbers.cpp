# 0 "lines.cpp"
# 0 "<built-in>"
# 0 "<command-line>"
# 1 "/usr/include/stdc-predef.h" 1 3 4
# 0 "<command-line>" 2
# 1 "lines.cpp"
constexpr int first = 1;


constexpr int second = 4 * 100;
# 70 "elsewhere.cpp"
constexpr int third = 70;
