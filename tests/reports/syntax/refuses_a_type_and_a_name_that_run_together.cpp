constexpr inta = 1;
