static_assert(1, "a"); static_assert(1, "a" "b");
