

  constexpr

int   
 a
=
2
+   3
*
 4

;constexpr int
b= 7
;

