constexpr int a = "a";
