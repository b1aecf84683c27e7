constexpr int constex = 1;
constexpr int in = 2;
constexpr int char8 = 3;
constexpr int clas = 4;
constexpr int not_e = 5;
