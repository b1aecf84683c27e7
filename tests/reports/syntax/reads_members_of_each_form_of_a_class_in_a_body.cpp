void f() {
    class S : public T {
        using U = int;
        enum E { a, b };
        struct V { V() { } };
        static_assert(1);
        consteval { g(); }
        int c = 1;
        static constexpr int d = 2;
        S() : c(3) { }
        ~S() { }
    public:
        int h() const { return c; }
    };
}
