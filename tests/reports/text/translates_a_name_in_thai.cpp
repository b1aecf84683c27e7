constexpr int ขนาด = 1;
