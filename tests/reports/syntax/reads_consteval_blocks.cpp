consteval { }
consteval { int a = 1; { a = 2; } }
