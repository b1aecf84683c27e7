# 1 'a'
constexpr int a = 1;
