struct a { int b(); }; struct c { virtual int d(); };
