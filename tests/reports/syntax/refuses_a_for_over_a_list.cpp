int c[1];
void f(int a) { for (int b : c) ; }
void g(int a) { for (int b : {1, 2}) ; }
