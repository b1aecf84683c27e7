int a = ^^int == ^^::;
int b = f(^^ ::n::x, ^^const int*);
int c = ^^std::vector<s> != ^^typename [: d :];
