constexpr unsigned long long a = 01777777777777777777777;
