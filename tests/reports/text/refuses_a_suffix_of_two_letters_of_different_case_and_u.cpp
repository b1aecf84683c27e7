constexpr int a = 1uLl;
