int b = sizeof(int); int c = alignof(int);
