int b = ^^::; int c = ^^;
