struct s { int a; };
s b = s();
s c = ::s({1});
int f(s);
int d = f(s());
