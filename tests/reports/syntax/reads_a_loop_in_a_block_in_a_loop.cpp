void f() { while (1) { consteval { while (1) break; } continue; } }
