constexpr int register = 1;
