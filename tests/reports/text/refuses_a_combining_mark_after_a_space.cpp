constexpr int o ̈ = 1;
