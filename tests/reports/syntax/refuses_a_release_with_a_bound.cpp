void f(int a) { delete[] &a; }
void g(int a) { delete[1] &a; }
