int a 

 @