constexpr char a = '\xFA';
