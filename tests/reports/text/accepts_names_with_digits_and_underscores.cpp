constexpr int a1b2 = 1;
constexpr int _9 = 2;
constexpr int snake_case_3 = 3;
constexpr int x__y = 4;
constexpr int Z = 5;