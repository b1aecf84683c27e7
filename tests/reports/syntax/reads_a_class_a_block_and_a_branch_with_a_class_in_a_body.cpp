int f() { struct S { int a; }; consteval { } if (1) { struct T; } return 0; }
