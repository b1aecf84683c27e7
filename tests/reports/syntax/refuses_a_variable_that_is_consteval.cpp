int a; consteval int b = 1;
