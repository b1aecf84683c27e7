constexpr int a = .5;
