constexpr const char* a = "\n\t\r\a\b\f\v\\\'\"\?\0\7\12\377\x0\xff\xFF";
