struct s { int b; s* c; };
void f(int* a, s d, s* e) {
    *a = 1; a[2] = 3; d.b += 4; e->c->b = 5; (*a) = 6; **&a = 7; ++*a; d.c->b--; ++e->b; (*e).b <<= 2;
}
