void f(int a) { int b; }
void g(int a) { struct b { }; }
