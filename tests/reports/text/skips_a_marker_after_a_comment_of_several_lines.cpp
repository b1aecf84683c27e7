/* one
 two */ # 1 "a.cpp"
constexpr int a = 1;
