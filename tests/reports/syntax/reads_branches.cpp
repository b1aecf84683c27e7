int f(int a) {
    if (a) return 1;
    if (a == 2) { } else return 3;
    if (a < 3) if (a > 4) return 5; else return 6; else ;
    if (a) { } else if (a + 1) { } else { return 7; }
    return 8;
}
