constexpr const signed a = 1;
