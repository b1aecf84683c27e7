void f(int a) { for (;;) ; }
void g(int a) { for (;) ; }
