constexpr const char* a = "\X41";
