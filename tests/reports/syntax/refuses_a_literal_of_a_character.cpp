constexpr int a = 'a';
