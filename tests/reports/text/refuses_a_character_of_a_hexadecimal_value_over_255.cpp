constexpr char a = '\x100';
