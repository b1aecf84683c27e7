constexpr char a = '\'';
