constexpr int a = 1 / 0;
constexpr int a = 1;
