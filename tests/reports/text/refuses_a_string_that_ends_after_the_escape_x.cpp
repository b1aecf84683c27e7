constexpr const char* a = "\x";
