void f(int a) { if (a) ; else ; }
void g(int a) { else ; }
