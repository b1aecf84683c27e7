long unsigned int long a;
int short b;
int unsigned long c;
signed d;
short signed e;
unsigned char f;
signed char g;
long long h;
long int i;
