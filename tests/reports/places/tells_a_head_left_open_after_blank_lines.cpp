namespace a { int b;

	
   