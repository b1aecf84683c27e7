int f() { enum E { a }; return 0; }
