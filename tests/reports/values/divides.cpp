constexpr int a = 42 / 6;
