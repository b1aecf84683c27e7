constexpr int not = 1;
