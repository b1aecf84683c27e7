using a = int;
int b = sizeof(a*);
int c = sizeof(b * b);
int d = sizeof(const a* const);
