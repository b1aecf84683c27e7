constexpr int int = 1;
