constexpr char a = '\';
