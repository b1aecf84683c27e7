constexpr const char* a = "\n\q";
