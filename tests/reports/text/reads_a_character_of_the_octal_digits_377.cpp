constexpr char a = '\377';
