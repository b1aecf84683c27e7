void f(int n) { int i = 0; for ( ; i < n ; ) ++i; }
