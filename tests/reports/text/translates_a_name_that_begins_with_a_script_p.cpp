constexpr int ℘ = 1;
