constexpr char a = '\f';
