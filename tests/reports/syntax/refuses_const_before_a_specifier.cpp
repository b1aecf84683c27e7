const int a = 1; const constexpr int b = 1;
