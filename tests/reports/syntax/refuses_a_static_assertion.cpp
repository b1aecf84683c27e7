static_assert(1 == 1);
