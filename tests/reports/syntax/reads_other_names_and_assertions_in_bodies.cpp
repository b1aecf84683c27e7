void f() {
    using a = const int*;
    static_assert(1 < 2, "less");
    if (true) static_assert(true);
    a b = nullptr;
}
