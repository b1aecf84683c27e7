void f(int a) { 1 * a + 1; }
void g(int a) { a * a + 1; }
