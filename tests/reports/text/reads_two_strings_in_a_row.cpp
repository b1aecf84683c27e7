constexpr const char* a = "a" "b";
