constexpr int a = 1z;
