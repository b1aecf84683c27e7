constexpr int 크기 = 1;
