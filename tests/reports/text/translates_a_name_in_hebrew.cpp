constexpr int גודל = 1;
