constexpr const char* a = "b\qc";
