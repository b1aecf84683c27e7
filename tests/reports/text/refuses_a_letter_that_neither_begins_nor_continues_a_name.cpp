constexpr int ͺ = 1;
