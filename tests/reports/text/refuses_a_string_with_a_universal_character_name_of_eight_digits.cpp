constexpr const char* a = "\U00000041";
