constexpr const char* a = "b\é";
