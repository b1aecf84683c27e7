struct a { static constexpr int b = 1; };
struct c { static int d; };
