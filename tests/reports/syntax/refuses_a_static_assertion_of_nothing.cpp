static_assert(1);
static_assert();
