int f() { return 1; } int g() = { return 1; }
