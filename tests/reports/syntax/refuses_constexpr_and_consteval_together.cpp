consteval int f() { return 1; }
constexpr consteval int g() { return 1; }
