int b = 1 != 2; int c = 1 not_eq 2;
