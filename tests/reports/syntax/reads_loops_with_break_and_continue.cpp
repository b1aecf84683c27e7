void f(int a) {
    while (a) { if (a == 1) break; else continue; }
    while (true) while (a) break;
    for (;;) { { break; } }
    for (;;) if (a) continue; else break;
}
