int b = 1 - -1; int c = 1 -;
