# 1 "a.cpp" one
constexpr int a = 1;
