constexpr int a = 0u;
