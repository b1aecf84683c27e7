constexpr int a = 1;
constexpr int b = a + 1;
