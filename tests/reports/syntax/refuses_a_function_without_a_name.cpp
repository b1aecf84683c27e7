int b = 1; int c = [] { return 1; }();
