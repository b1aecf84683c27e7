enum a { };
enum b { c, d = 2, };
enum class e : unsigned char { f = 1 + 2, g };
enum struct h : long { i, j = 1 ? 2 : 3 };
enum k : int { l };
