constexpr unsigned long long a = 0x0123456789abcdef;
constexpr unsigned long long b = 0xABCDEF;
