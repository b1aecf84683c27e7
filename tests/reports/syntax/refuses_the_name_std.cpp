constexpr int std = 1;
