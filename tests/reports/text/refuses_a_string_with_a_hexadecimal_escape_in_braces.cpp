constexpr const char* a = "\x{41}";
