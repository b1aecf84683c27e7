int a; extern int b;
