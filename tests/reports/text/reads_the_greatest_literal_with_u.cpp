constexpr unsigned long long a = 18446744073709551615u;
