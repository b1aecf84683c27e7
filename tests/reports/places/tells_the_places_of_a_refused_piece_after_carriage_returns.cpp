
constexpr int a =1 +2 / 0;
