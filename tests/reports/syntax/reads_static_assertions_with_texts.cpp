static_assert(1 < 2, "one is less");
static_assert(true, "");
