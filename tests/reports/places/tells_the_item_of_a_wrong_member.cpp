struct a { int b; };
struct c {
    int d;
    int e f;
};
