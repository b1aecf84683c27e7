constexpr char a = '0';
