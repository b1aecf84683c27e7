constexpr const char* a = "\400";
