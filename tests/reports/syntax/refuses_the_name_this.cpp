constexpr int this = 1;
