void f(int a) { if (a) if (a) ; else ; else ; }
void g(int a) { if (a) ; else ; else ; }
