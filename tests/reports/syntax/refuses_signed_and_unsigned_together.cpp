signed a; unsigned b; signed unsigned c;
