namespace a {
int b;

