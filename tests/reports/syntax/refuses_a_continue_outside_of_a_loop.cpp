void f(int a) { for (;;) continue; }
void g(int a) { if (a) { continue; } }
