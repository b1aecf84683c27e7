using a = int; using b = int[3];
