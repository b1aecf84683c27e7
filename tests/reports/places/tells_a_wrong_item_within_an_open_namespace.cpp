namespace a {
 int b c;
