constexpr int width = 80;
constexpr int height = 25;
constexpr int area = 80 * 25;
  constexpr int side 80;
constexpr int last = 1;
