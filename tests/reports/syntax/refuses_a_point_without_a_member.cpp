struct s { int b; };
s a;
int b = a.b; int c = a.;
