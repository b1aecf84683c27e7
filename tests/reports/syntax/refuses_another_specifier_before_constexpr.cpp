static constexpr int a = 1;
