constexpr char a = '\x10000000000000041';
