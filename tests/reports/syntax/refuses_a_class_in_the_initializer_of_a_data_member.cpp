struct S { int a = struct T { }; };
