constexpr int a = 08;
