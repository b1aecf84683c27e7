void f(int a) { for (a = 1; a; ++a) ; }
void g(int a) { for (a = 1; a; ++a;) ; }
