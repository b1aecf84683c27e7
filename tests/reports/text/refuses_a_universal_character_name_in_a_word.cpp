constexpr int \u0061 = 1;
