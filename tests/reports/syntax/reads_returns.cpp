struct a { int b; int c; };
void f() { return; }
int g() { return 1; }
a h() { return {1, 2}; }
a i() { return {}; }
int j() { return {3}; }
