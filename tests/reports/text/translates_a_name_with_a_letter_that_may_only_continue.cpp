constexpr int นำ = 1;
