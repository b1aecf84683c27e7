struct a { int b; int c; };
a d = {.b = 1, .c = 2}; a e = {.b = 1, 2};
