int f() { if (struct S { }; 1) return 1; return 0; }
