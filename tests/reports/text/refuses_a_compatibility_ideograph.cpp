constexpr int 豈 = 1;
