constexpr const char* a = "\N{LATIN SMALL LETTER A}";
