constexpr const char* a = "\xffg";
