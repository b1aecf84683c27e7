constexpr char a = '\r';
