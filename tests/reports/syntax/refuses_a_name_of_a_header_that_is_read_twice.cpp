# 0 "repeat.cpp"
# 0 "<built-in>"
# 0 "<command-line>"
# 1 "/usr/include/stdc-predef.h" 1 3 4
# 0 "<command-line>" 2
# 1 "repeat.cpp"
# 1 "repeat.h" 1
constexpr int shared = 1;
# 2 "repeat.cpp" 2
# 1 "repeat.h" 1
constexpr int shared = 1;
# 3 "repeat.cpp" 2
