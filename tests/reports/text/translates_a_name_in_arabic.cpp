constexpr int حجم = 1;
