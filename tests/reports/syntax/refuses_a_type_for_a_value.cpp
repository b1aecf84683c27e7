int b = int(); int c = int;
