# 1 "a.cpp" 1 3 4
constexpr int a = 1;
