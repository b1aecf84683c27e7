constexpr int auto = 1;
