constexpr int z = 26;
constexpr int a = 1;
constexpr int m = 13;
