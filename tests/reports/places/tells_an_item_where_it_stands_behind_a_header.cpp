# 0 "wrong.cpp"
# 0 "<built-in>"
# 0 "<command-line>"
# 1 "/usr/include/stdc-predef.h" 1 3 4
# 0 "<command-line>" 2
# 1 "wrong.cpp"
# 1 "sizes.h" 1







constexpr int width = 80;
constexpr int height = 25;
# 2 "wrong.cpp" 2

constexpr int area = 80 * 25;
  constexpr int side 80;
constexpr int last = 1;
