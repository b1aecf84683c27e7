constexpr char a = '\n\n';
