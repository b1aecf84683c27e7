struct s { };
void f() {
    int a;
    constexpr int b = 1;
    const int c{2};
    int d[2] = {};
    int e[] = {3};
    s g;
    s* h = &g;
    const s* const* i;
    ::s j;
    unsigned long k = {4};
}
