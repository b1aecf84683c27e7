inline int f() { return 1; }
static int g() noexcept { return 2; }
constexpr int h() { return 3; }
consteval int i() { return 4; }
static inline constexpr int j() { return 5; }
inline consteval int k() { return 6; }
