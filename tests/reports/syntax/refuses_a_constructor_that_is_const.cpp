struct a { int b() const { return 1; } }; struct c { c() const { } };
