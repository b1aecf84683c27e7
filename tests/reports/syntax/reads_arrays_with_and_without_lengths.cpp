int a[3];
int b[2][2] = {{1, 2}, {3, 4}};
int c[] = {1, 2,};
int d[]{3};
const int e[][2] = {{5, 6}};
int f[1 + 2 * 3]{};
