void f(int a) { { } }
void g(int a) { try { } catch (int) { } }
