constexpr char a = '/';
