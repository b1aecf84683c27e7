int b = *(new int) * 2; int c = *new int * 2;
