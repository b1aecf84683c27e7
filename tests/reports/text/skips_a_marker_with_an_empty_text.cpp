# 1 ""
constexpr int a = 1;
