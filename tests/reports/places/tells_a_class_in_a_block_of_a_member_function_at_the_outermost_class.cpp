/* é */ struct S {
  struct T {
    void f() { consteval { struct U; } }
  };
};
