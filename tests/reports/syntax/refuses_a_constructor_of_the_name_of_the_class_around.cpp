struct a { a() { } struct b { b() { } }; };
struct c { struct d { c() { } }; };
