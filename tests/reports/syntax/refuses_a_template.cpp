int a;
template <int b> struct c { };
