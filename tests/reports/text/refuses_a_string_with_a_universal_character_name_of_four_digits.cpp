constexpr const char* a = "\u0041";
