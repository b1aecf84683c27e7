constexpr unsigned long long a = 0xabcdefULL;
