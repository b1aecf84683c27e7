constexpr unsigned long long a = 1ull;
