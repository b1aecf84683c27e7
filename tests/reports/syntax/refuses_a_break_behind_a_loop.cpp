void f(int a) { while (a) { break; } }
void g(int a) { while (a) { } break; }
