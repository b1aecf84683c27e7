constexpr int
# 1 "a.cpp"
a = 1;
