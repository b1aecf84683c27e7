constexpr char a = '\t';
