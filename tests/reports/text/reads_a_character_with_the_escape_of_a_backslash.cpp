constexpr char a = '\\';
