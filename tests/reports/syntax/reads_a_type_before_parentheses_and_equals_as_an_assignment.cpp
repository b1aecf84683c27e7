void f() {
    int(a) = 1;
    int(2);
}
