       
constexpr int fits = 46340 * 46340;
constexpr int overflows = 1 + 46341 * 46341;
constexpr int after = 46341 / 0;
