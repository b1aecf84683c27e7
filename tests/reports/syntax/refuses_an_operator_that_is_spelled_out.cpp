int b = 1 && 0; int c = 1 and 0;
