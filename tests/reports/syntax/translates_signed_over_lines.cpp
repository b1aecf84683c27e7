constexpr
signed
int
a
=
1
;
