int a[2];
constexpr int b = 1;
int c = a[::b];
int d[::b + 1];
