# 1 "a.cpp" "b.cpp"
constexpr int a = 1;
