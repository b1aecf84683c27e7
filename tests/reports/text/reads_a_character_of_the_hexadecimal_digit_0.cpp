constexpr char a = '\x0';
