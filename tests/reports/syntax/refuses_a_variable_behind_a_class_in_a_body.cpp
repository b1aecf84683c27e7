int f() { struct S { int a; } s; return 0; }
