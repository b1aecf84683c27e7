void f() { while (1) consteval { break; } }
