consteval { if (1) ; else { consteval { } } }
