constexpr int a = 1;
constexpr