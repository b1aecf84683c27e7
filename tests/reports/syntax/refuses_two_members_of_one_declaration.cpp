struct a { int b; };
struct c { int d, e; };
