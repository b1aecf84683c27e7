constexpr const char* a = "\N";
