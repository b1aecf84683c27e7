constexpr char a = '\a';
