struct a { int b; a() : b{1} { } }; struct c { int d; c() : d = 1 { } };
