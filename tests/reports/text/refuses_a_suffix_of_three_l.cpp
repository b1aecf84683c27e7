constexpr int a = 1lll;
