#include /* one */ <meta>
constexpr int a = 1;
