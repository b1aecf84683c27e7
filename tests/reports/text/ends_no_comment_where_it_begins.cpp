/*/ constexpr int a = 1; /*/constexpr int b = 2;
