constexpr int operator = 1;
