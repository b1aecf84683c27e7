# 1 "a.cpp"
constexpr int a = 1;
