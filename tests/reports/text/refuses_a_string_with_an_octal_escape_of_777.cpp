constexpr const char* a = "\777";
