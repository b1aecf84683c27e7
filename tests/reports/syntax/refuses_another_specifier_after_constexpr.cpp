constexpr inline int a = 1;
