int f() { int a = consteval { }; return a; }
