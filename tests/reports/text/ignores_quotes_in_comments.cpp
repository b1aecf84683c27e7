// it's "
/* ' " */
constexpr int a = 1;
