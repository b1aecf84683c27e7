void f(int a) { if (1) ; }
void g(int a) { if constexpr (1) ; }
