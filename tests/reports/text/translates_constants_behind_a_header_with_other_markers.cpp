# 1 "page.cpp"
# 1 "<built-in>" 1
# 1 "<built-in>" 3
# 431 "<built-in>" 3
# 1 "<command line>" 1
# 1 "<built-in>" 2
# 1 "page.cpp" 2
# 1 "./sizes.h" 1







constexpr int width = 80;
constexpr int height = 25;
# 2 "page.cpp" 2


constexpr int cells = 80 * 25;

constexpr int half = 80 / 2;



constexpr int rest = 25 % 2 + 80 * 3 - 1;
