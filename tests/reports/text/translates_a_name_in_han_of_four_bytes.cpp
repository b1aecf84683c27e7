constexpr int 𠀀 = 1;
