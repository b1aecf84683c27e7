int b = (1); int c = (1;
