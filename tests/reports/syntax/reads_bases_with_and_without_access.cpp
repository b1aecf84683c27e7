struct a { };
struct b { };
struct c { };
class d : public a, private b, protected c { };
struct e : a, ::b { };
