constexpr int a = 1ulu;
