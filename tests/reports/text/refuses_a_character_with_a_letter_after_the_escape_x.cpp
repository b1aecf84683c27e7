constexpr char a = '\xg';
