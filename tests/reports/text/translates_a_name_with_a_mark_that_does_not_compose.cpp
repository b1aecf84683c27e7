constexpr int q̈ = 1;
