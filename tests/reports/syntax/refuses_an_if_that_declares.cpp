void f(int a) { if (a) ; }
void g(int a) { if (int b = a) ; }
