# 0 "big.cpp"
# 0 "<built-in>"
# 0 "<command-line>"
# 1 "/usr/include/stdc-predef.h" 1 3 4
# 0 "<command-line>" 2
# 1 "big.cpp"

# 1 "big.h" 1
       

constexpr int fits = 46340 * 46340;
constexpr int overflows = 1 + 46341 * 46341;
# 3 "big.cpp" 2
constexpr int after = 46341 / 0;
