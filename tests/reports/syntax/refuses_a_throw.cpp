int b = 1; int c = throw 1;
