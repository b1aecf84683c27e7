constexpr char a = '?';
