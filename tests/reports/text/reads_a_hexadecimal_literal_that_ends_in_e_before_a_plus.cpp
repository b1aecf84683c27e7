constexpr int a = 0xe+1;
