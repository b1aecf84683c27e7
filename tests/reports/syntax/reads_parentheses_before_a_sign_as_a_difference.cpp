int a = 1;
int b = (a)-1;
int c = (a) - (a) + (a)*(a);
int f(int);
int d = (f)(1);
