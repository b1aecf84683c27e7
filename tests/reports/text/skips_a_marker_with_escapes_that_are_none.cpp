# 1 "C:\q\400\x"
constexpr int a = 1;
