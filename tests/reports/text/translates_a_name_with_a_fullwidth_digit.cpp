constexpr int a１ = 1;
