constexpr const char* a = "\1234\08";
