struct a { };
struct b : a, { };
