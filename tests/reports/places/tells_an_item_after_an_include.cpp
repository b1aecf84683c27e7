#include <meta>

#include <meta>
int a; int b c;
