constexpr int a = 1;
constexpr int aa = 2;
constexpr int aaa = 3;
