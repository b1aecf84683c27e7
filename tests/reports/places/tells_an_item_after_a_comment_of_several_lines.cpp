int a; /* one
two */ int b; /* three */ int c d;
