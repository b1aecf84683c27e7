constexpr int static_assert = 1;
