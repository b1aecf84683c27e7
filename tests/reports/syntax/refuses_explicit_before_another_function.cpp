struct a { explicit a(int) { } }; struct b { explicit int c() { return 1; } };
