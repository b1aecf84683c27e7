# 1'0 "a.cpp"
constexpr int a = 1;
