constexpr int a = 01234567;
