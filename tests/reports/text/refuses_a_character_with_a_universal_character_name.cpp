constexpr char a = '\u0041';
