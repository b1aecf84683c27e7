int a; double b = 1;
