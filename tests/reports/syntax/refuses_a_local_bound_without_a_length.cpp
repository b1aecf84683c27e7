void f(int a) { int b[] = {1}; }
void g(int a) { int b[]; }
