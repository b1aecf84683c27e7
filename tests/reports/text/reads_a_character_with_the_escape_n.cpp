constexpr char a = '\n';
