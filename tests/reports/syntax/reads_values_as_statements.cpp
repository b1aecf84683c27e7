int g(int);
void f(int* a) {
    g(1);
    1 + 2;
    *a;
    a[0] == 3;
    (a);
    -1;
    int(4);
    int{5};
    "text";
    g(g(6)) ? 7 : 8;
}
