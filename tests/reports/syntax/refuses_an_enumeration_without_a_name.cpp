enum a { b };
enum { c };
