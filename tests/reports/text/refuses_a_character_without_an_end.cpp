constexpr char a = 'b;
