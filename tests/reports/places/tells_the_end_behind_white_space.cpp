namespace a { 	
  