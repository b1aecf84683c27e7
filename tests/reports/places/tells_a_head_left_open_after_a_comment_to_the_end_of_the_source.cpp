namespace a {
int b; // and no }