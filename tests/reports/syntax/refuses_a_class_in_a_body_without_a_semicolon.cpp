int f() { struct S { int a; } return 0; }
