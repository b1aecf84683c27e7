constexpr const char* a = "\x100";
