void f(int a) { while (a) ; }
void g(int a) { while () ; }
