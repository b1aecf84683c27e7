constexpr int 𐐀𐐨 = 1;
