constexpr int K = 1;
