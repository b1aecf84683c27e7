int a = 1;
int b = [:a:]; int c = [ :a: ];
