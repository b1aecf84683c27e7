constexpr int true = 1;
