void f(int a) { 1 & a && a; }
void g(int a) { a & a && a; }
