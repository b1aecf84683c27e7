int z;
  int f() { if (1) consteval { struct S; } return 0; }
