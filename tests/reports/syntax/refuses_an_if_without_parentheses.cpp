void f(int a) { if (a) ; }
void g(int a) { if a ; }
