struct S { consteval { consteval { } } };
