const\
expr int a = 1;
