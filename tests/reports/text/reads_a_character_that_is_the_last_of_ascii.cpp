constexpr char a = '';
