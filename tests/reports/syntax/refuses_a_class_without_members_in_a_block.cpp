consteval { struct S; }
