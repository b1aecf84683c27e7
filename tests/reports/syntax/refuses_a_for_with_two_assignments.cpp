void f(int a) { for (;; ++a) ; }
void g(int a) { for (;; ++a, ++a) ; }
