constexpr int q̣̇ = 1;
