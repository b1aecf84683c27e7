namespace n {
int f() {
  if (1) {
}
}
