using a = int; using b = ;
