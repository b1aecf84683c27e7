constexpr int 大小 = 1;
