constexpr const char* a = "it's";
