constexpr unsigned long long a = 0xffffffffffffffffll;
