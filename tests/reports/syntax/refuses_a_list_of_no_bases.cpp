struct a { }; struct b : { };
