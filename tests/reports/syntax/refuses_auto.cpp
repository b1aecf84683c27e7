int a; auto b = 1;
