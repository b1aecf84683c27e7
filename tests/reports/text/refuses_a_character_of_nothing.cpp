constexpr char a = '';
