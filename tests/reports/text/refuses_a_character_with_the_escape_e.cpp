constexpr char a = '\e';
