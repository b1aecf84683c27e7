int constexpr a = 1;
