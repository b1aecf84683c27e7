struct a { a() { } };
struct b { b(); };
