# 100 "größe.cpp" 2
constexpr int a = 1 / 0;
