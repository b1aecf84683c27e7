int a;
  int f() {
    return 1;
