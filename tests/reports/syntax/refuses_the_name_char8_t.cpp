constexpr int char8_t = 1;
