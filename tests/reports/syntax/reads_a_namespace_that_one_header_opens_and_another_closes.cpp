# 0 "library.cpp"
# 0 "<built-in>"
# 0 "<command-line>"
# 1 "/usr/include/stdc-predef.h" 1 3 4
# 0 "<command-line>" 2
# 1 "library.cpp"
# 1 "begin.h" 1
namespace library {
# 2 "library.cpp" 2
constexpr int version = 3;
# 1 "end.h" 1
}
# 4 "library.cpp" 2
