using a = int; using int = a;
