constexpr char a = '\"';
