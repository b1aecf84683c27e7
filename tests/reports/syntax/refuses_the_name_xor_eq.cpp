constexpr int xor_eq = 1;
