struct t { int a; };
struct s { int a; t b; int c[2]; };
s d = {.a = 1, .b = {2}, .c{3, 4}};
s e{.b{.a = 5},};
s f = s{.a = 6};
