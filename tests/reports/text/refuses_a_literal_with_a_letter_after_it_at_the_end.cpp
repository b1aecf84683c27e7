

 1b