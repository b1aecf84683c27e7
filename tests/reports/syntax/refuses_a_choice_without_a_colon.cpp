int b = 1 ? 2 : 3; int c = 1 ? 2;
