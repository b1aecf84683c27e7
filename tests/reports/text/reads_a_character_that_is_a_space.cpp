constexpr char a = ' ';
