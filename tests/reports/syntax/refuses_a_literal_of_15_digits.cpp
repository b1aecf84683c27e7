constexpr int a = 123456789012345;
