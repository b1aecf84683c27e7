void f(int a) { { { } } }
void g(int a) { consteval { } }
