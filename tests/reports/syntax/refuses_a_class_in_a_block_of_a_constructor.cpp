struct S { S() { consteval { struct T; } } };
