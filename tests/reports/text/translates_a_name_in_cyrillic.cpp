constexpr int размер = 1;
