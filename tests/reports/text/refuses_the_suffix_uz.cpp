constexpr int a = 1uz;
