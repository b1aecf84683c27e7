constexpr int é = 1;
constexpr int é = 2;
