namespace n {
 struct a {
    int b;
}
