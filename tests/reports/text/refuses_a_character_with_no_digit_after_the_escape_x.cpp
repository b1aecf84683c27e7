constexpr char a = '\x';
