void f(int a) { return; }
void g(int a) { return }
