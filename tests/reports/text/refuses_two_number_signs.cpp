##include <meta>
constexpr int a = 1;
