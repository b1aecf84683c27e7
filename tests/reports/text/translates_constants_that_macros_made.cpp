# 0 "colours.cpp"
# 0 "<built-in>"
# 0 "<command-line>"
# 1 "/usr/include/stdc-predef.h" 1 3 4
# 0 "<command-line>" 2
# 1 "colours.cpp"
# 1 "list.h" 1
# 2 "colours.cpp" 2


constexpr int red = 1; constexpr int green = 2; constexpr int blue = 4;
constexpr int red_wide = 1 * 0x0 + 1 * 256; constexpr int green_wide = 2 * 0x0 + 2 * 256; constexpr int blue_wide = 4 * 0x0 + 4 * 256;
