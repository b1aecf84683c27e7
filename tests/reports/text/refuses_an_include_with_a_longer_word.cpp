#includes <meta>
constexpr int a = 1;
