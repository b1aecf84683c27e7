constexpr unsigned long long a = 9223372036854775808u;
