void f(int a) { (typename [: ^^int :](1)); }
void g(int a) { typename [: ^^int :](1); }
