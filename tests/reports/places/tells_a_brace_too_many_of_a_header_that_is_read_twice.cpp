# 0 "twice.cpp"
# 0 "<built-in>"
# 0 "<command-line>"
# 1 "/usr/include/stdc-predef.h" 1 3 4
# 0 "<command-line>" 2
# 1 "twice.cpp"
# 1 "begin.h" 1
namespace library {
# 2 "twice.cpp" 2
constexpr int version = 3;
# 1 "end.h" 1
}
# 4 "twice.cpp" 2
# 1 "end.h" 1
}
# 5 "twice.cpp" 2
