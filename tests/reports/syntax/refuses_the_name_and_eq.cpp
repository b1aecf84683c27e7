constexpr int and_eq = 1;
