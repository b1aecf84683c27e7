consteval { struct S { int a; }; }
