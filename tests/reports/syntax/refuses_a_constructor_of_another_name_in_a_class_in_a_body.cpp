int f() { struct S { T() { } }; return 0; }
