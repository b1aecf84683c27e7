void f() { for (: b) ; }
