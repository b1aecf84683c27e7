int f() {
    struct S {
        int g() {
            struct S {
                S() { struct S { ~S() { consteval { } } }; }
            };
            return 1;
        }
    };
    return 0;
}
