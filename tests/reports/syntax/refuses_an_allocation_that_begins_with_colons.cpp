int b = *new int; int c = *::new int;
