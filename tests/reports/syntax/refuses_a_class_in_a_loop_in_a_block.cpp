consteval { while (1) struct S; }
