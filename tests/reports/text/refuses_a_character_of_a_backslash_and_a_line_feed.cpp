constexpr char a = '\
';
