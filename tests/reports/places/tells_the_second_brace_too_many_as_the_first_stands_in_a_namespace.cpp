namespace a { int b; }; }
