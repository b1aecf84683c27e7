constexpr int ٣a = 1;
