constexpr const char* a = R"(\q)";
