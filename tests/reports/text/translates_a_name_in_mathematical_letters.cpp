constexpr int 𝒜𝒷 = 1;
