constexpr int a;
