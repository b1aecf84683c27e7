constexpr int bool = 1;
