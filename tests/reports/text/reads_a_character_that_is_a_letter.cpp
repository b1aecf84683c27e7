constexpr char a = 'b';
