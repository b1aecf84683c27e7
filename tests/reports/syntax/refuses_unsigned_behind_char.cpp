unsigned char a; char unsigned b;
