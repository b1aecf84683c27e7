int a(int);
int b = a(1); int c = a(1,);
