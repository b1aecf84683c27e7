constexpr int a = consteval { };
