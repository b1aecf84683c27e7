# 1 "big.cpp"
# 1 "<built-in>" 1
# 1 "<built-in>" 3
# 431 "<built-in>" 3
# 1 "<command line>" 1
# 1 "<built-in>" 2
# 1 "big.cpp" 2

# 1 "./big.h" 1


constexpr int fits = 46340 * 46340;
constexpr int overflows = 1 + 46341 * 46341;
# 3 "big.cpp" 2
constexpr int after = 46341 / 0;
