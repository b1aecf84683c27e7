constexpr int ำ = 1;
