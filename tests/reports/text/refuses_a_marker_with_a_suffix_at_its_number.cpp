# 1u "a.cpp"
constexpr int a = 1;
