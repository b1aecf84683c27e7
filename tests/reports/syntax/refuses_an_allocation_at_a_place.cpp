int* a;
int b = *new int(1); int c = *new (a) int(1);
