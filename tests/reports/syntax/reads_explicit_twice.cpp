struct a { explicit explicit a(int b) { } };
