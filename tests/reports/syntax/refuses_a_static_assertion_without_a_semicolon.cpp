int a;
  static_assert(1)
int b;
