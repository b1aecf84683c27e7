# 1 2 "a.cpp"
constexpr int a = 1;
