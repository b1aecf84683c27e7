constexpr const char* a = "\o{101}";
