constexpr int a = 1̈;
