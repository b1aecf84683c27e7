void f() {
    int a[2] = {1, 2};
    for (int b : a) ;
    for (const int& b : a) { a[0] = b; }
    for (unsigned long b : a) for (int c : a) if (b) break; else continue;
}
