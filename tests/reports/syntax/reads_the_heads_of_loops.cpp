void f(int a, int b) {
    for (int i = 0; i < 3; ++i) ;
    for (a = 0; a < 3; a += 2) { }
    for (; a; ) b = 1;
    for (a++; ; b) break;
    for (const int* c = &a; c; c = nullptr) { int d; }
    for (int c[2] = {1, 2}; c[0] < 3; c[0]++) ;
    for (--b; false; --b) { }
}
