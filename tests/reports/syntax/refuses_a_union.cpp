struct a { }; union b { int c; char d; };
