struct a { int b; };
struct c { a d; };
c e = {.d.b = 1};
