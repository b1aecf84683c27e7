enum a { b = 1 };
 enum c { d = {1} };
