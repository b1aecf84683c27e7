constexpr int a = 1;
# 1 "a.cpp"