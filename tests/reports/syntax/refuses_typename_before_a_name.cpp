namespace a { struct b { }; }
a::b c; typename a::b d;
