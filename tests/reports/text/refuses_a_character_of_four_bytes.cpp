constexpr char a = '😀';
