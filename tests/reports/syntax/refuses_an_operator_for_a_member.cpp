struct a { int b; }; struct c { int operator+(int d); };
