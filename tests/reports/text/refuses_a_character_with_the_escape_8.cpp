constexpr char a = '\8';
