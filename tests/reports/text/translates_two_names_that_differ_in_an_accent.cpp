constexpr int e = 1;
constexpr int é = 2;
