constexpr int a = 4 / * 2;
