struct a { };
struct { int b; } c;
