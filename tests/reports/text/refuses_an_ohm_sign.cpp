constexpr int Ω = 1;
