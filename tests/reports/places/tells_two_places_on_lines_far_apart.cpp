

constexpr int
a
=
7
-

 1
/
0
;
