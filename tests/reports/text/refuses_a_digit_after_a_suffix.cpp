constexpr int a = 1u2;
