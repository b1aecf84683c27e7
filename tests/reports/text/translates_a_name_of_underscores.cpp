constexpr int __ = 1;
