struct a {
    int b;
    int c;
    constexpr a() : b(), c{} { }
    explicit constexpr a(int d) noexcept : b(d), c{d} { }
    constexpr explicit a(char, char) : a{} { }
};
