int a; constexpr static constexpr int b = 1;
