void f(int a) { constexpr int b = 1; }
void g(int a) { static int b = 1; }
