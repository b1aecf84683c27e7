struct S {
    S() : b{1} { struct T { int c; }; consteval { } }
    ~S() { if (b) { class T; } else consteval { ; } }
    int f() const { while (b) struct T { ~T() { } }; return b; }
    static int g() { consteval { } return 0; }
    int b;
};
