static int a = 1;
inline int b = 2;
static inline int c = 3;
constexpr static int d = 4;
constexpr inline int e = 5;
inline static constexpr int f = 6;
