struct a;
class b;
struct a { };
class b { };
