void f(int a) { a = a + 1; }
void g(int a) { a + 1 = a; }
