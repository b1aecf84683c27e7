constexpr int typename = 1;
