constexpr int int2 = 1;
constexpr int constexprx = 2;
constexpr int int_ = 3;
constexpr int classes = 4;
constexpr int do1 = 5;
constexpr int inthe = 6;
