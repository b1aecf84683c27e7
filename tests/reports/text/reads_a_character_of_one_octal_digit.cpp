constexpr char a = '\7';
