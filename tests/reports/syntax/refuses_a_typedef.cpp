int a;
 typedef int b;
