constexpr int meta = 1;
constexpr int extract = 2;
constexpr int bytes = 3;
constexpr int bits = 4;
