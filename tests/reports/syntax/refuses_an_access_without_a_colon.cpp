struct a { public: int b; }; struct c { public int d; };
