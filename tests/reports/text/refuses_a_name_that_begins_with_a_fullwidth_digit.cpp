constexpr int １a = 1;
