using a = int;
void f() {
    a * b;
    a & c = *b;
    a const * d;
}
