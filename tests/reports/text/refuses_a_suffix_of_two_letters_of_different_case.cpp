constexpr int a = 1lL;
