namespace n { struct b { b(int, int) { } }; }
struct a : n::b { a() : n::b({}, 1) { } };
struct c : n::b { c() : ::n::b{1, 2} { } };
