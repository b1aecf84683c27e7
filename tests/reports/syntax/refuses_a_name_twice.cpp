constexpr int a = 1;
constexpr int a = 1;
