void f(int a) { while (a) ; }
void g(int a) { b: goto b; }
