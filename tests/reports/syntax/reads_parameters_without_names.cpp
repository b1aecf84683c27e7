void f(int, const int&, char**, unsigned long int const) { }
void g(void);
