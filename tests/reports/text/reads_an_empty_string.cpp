constexpr const char* a = "";
