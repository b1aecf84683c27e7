constexpr int café = 1;
