int a;
int b = 1;
int c{2};
int d = {3};
int e{};
int f = {};
