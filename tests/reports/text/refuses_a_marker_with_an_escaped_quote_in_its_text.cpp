# 1 "a\"b"
constexpr int a = 1;
