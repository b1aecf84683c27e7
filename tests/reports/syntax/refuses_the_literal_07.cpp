constexpr int a = 07;
