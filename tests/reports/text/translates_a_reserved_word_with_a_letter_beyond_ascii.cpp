constexpr int inté = 1;
