struct a { }; struct b : public private a { };
