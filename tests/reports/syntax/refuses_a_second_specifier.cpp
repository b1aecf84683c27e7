constexpr const int a = 1;
