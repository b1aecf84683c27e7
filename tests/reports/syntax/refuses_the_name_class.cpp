constexpr int class = 1;
