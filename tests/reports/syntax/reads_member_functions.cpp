struct a {
    int f();
    int g(int b) const;
    static int h() noexcept { return 1; }
    constexpr int i() const noexcept { return 2; }
    consteval int j() { return 3; }
    inline void k(const a& b, a*) { }
};
