constexpr const char* a = "b\ c";
