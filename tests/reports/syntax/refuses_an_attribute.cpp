int a; [[nodiscard]] int f();
