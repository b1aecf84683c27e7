constexpr int a = 1;
consteval {