constexpr const char* a = "aé€😀";
