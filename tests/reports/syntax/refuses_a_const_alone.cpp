void f(int a) { const int b = 1; }
void g(int a) { const; }
