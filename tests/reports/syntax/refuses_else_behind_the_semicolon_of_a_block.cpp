int f() { if (1) consteval { }; else ; return 0; }
