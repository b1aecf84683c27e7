namespace n {
 class a {
    int b() { return 1 }
  };
}
