constexpr signed a = 1;
constexpr signed int b = 2;
constexpr int signed c = 3;
