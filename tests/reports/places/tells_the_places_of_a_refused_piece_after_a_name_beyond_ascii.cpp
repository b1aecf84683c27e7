constexpr int größe = 1 + 1 / 0;
