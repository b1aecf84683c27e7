constexpr int a = 1𐐀;
