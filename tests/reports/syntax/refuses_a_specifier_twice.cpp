static int a; static static int b;
