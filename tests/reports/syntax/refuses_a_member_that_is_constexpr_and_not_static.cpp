struct a { static constexpr int b = 1; };
struct c { constexpr int d = 1; };
