constexpr int a = true;
