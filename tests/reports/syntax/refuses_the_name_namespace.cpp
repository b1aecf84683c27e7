constexpr int namespace = 1;
