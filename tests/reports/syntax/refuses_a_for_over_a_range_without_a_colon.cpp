void f() { for (int a b) ; }
