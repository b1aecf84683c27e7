short a; long b; short long c;
