# 1 "a.cpp" -1
constexpr int a = 1;
