constexpr const char* a = "\x41bcd";
