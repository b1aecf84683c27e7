int a;
 namespace b
int c;
