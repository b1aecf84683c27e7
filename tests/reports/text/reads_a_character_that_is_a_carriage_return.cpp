constexpr char a = '';
