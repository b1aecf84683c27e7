constexpr char a = '#';
