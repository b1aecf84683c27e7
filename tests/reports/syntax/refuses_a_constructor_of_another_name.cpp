struct a { a() { } };
struct b { a() { } };
