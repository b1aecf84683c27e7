#in clude <meta>
constexpr int a = 1;
