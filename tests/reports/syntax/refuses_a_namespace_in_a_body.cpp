void f(int a) { { int b; } }
void g(int a) { namespace b { } }
