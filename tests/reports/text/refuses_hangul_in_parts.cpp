constexpr int 한 = 1;
