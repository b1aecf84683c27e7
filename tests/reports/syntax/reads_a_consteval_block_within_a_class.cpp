struct a { int b; consteval { f(); } };
