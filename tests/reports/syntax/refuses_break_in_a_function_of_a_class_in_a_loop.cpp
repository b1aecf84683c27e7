void f() { while (1) struct S { void g() { break; } }; }
