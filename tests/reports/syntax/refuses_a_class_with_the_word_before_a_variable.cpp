struct a { }; struct a b;
