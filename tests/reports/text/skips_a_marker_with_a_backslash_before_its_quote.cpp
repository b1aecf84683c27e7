# 1 "a\" 2
constexpr int a = 1;
