constexpr char a = '	';
