constexpr int std::a = 1;
