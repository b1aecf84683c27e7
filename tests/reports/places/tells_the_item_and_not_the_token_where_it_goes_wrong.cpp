int a;
  constexpr
    int
    b
    =
    1
    2
    ;
