constexpr const char* a = "\8";
