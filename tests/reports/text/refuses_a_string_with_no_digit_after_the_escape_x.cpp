constexpr const char* a = "\xg";
