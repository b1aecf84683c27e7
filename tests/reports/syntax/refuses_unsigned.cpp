constexpr unsigned a = 1;
