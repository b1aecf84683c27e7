constexpr int a·b = 1;
