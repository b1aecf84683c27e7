constexpr int INT = 1;
constexpr int Class = 2;
constexpr int Constexpr = 3;
