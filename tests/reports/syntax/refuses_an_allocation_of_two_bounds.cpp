int a[2];
int b = a[1]; int c = **new int[2][3];
