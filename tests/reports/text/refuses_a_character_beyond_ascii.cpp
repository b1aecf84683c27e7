constexpr char a = 'é';
