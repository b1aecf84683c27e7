int a;
int b() { return a; }
int c() {
    int d = 1;
    return d d;
}
int e;
