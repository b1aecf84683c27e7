constexpr int 😀 = 1;
