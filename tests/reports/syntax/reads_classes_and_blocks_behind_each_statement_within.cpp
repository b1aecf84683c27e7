int f(int a) {
    if (a) struct S; else consteval { }
    if (a) consteval { ; } else class S { int b; };
    while (a) struct S { };
    while (a) consteval { }
    for (;;) class S : T { };
    for (int b = 1; b < a; ++b) consteval { g(); }
    for (int b : a) struct S;
    for (int b : a) { consteval { } }
    return 0;
}
