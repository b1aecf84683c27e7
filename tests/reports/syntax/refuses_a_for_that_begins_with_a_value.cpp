void f(int a) { for (a = 1;;) ; }
void g(int a) { for (a;;) ; }
