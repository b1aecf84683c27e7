int a; // int b c;
 // }
  int b c; // int d
