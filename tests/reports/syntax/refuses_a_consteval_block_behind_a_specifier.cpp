consteval { } inline consteval { }
