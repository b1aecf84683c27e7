constexpr int a = 1_;
