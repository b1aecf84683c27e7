consteval { consteval {} }
