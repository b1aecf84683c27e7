constexpr int क़ = 1;
