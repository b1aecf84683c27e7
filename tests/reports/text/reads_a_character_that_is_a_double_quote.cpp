constexpr char a = '"';
