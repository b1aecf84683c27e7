constexpr char a = '
';
