constexpr const char* a = R"(b"c)";
