int b = (^^int) * 2; int c = ^^int * 2;
