int b = ^^int; int c = ^^1;
