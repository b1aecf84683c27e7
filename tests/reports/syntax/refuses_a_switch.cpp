void f(int a) { if (a) { } }
void g(int a) { switch (a) { case 1: ; } }
