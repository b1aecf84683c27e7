constexpr int A = 1;
constexpr int Ａ = 2;
