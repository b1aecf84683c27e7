constexpr int a = ;
