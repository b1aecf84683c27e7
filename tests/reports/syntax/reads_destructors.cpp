struct a { ~a() { } };
struct b { constexpr ~b() noexcept { ; } };
struct c { inline ~ c ( ) noexcept { return; } };
