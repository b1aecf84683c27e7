constexpr int a = 9'999'999'999'999'999'999;
