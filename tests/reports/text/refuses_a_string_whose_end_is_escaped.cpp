constexpr const char* a = "b\";
