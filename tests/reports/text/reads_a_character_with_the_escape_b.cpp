constexpr char a = '\b';
