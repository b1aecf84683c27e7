int b = sizeof(int); int c = sizeof(int[2]);
