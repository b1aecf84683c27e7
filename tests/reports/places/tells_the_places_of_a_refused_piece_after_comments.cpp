/* 1
 2 */ constexpr int a = /* 3 */ 1 /* 4 */ / 0;