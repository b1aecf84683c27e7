constexpr int* a = 0;
