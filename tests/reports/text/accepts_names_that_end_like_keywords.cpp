constexpr int _int = 1;
constexpr int myclass = 2;
constexpr int xor_eq_ = 3;
