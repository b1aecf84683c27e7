constexpr char a = '\xff';
