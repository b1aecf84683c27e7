constexpr int nullptr = 1;
