} int b c;
