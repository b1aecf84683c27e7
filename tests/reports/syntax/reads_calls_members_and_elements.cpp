struct s { int b; s* c; s* f(int, int) const; };
s g();
s a[2];
int d = a[1].c->b;
int e = g().f(1, 2 + 3)->c[0].b;
int h = (*a).f((4), {5})->b;
