int a[2];
int b = a[1]; int c = a[1, 0];
