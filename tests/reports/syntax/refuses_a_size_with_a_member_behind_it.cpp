struct s { int b; };
s a;
int b = sizeof(a); int c = sizeof (a).b;
