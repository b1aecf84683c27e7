constexpr int meta = 1;
constexpr int vector = 2;
constexpr int string_view = 3;
constexpr int info = 4;
constexpr int extract = 5;
