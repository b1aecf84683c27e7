constexpr long a = 1;
