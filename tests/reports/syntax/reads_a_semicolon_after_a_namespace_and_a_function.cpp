namespace a { };
void f() { };
