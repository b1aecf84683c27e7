struct a {
    struct b { int c; b() { } ~b() { } };
    enum d { e };
    using f = int;
    static_assert(1 == 1);
    class g;
    a() { }
};
