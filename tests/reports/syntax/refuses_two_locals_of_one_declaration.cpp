void f(int a) { int b; int c; }
void g(int a) { int b, c; }
