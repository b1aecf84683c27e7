struct a { }; struct b { friend struct a; };
