constexpr int é = 1;
