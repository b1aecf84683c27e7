unsigned char a; unsigned char int b;
