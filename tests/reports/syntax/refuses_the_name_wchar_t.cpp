constexpr int wchar_t = 1;
