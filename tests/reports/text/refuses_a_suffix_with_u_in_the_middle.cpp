constexpr int a = 1lul;
