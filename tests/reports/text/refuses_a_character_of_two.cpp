constexpr char a = 'bc';
