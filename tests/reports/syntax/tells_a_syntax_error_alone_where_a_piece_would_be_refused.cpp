constexpr int a = 1 / 0;
constexpr int b = 2;
constexpr int c = ;
