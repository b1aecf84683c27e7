int a;
{ int b; }
