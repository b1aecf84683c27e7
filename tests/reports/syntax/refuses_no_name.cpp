constexpr int = 1;
