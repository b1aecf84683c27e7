struct a { int b; a() : b(1) { } };
struct c { c() : { } };
