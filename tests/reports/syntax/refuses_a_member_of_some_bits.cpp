struct a { int b; }; struct c { int d : 3; };
