constexpr int a = 1uu;
