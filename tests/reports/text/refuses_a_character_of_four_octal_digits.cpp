constexpr char a = '\1011';
