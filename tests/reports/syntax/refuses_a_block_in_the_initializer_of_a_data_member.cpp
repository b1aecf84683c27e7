struct S { int a = consteval { }; };
