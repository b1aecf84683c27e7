struct a { };
 struct b { int c; }
int d;
