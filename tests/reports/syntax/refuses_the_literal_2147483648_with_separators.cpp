constexpr int a = 2'147'483'648;
