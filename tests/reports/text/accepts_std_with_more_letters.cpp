constexpr int std1 = 1;
constexpr int st = 2;
constexpr int Std = 3;
