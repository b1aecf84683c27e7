namespace a { int b; } } int c;
