constexpr const char* a = "/* // */ #";
