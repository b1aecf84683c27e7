constexpr a = 1;
