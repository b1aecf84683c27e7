constexpr const char* a = "\e";
