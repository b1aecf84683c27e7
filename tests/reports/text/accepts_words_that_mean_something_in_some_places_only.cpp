constexpr int final = 1;
constexpr int override = 2;
