struct s { int a; };
int b = int(1) + int() + int{2} + int{};
s c = s{3};
s d = s{.a = 4};
int e = s{5}.a;
char f = char('a');
