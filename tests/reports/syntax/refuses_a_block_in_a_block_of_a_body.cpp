int z;
  int f() { consteval { consteval { } } return 0; }
