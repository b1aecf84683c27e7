constexpr char a = '\?';
