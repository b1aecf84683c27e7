constexpr int width = 80;
constexpr int height = 25;
constexpr int cells = 80 * 25;
constexpr int half = 80 / 2;
constexpr int rest = 25 % 2 + 80 * 3 - 1;
