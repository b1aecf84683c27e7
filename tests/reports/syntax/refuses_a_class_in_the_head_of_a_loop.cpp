void f() { for (struct S { }; ; ) ; }
