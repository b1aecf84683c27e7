namespace n { constexpr int a = 1; }
