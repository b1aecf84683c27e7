# 1 "a//b/*c*/ '#"
constexpr int a = 1;
