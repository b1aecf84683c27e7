constexpr int a = 1 + 2 * 99999999999999999999;
