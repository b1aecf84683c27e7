constexpr char a = '\v';
